"""Gateways with one fault each: a right one, with a proxy in front of it that changes what it says or hears."""
