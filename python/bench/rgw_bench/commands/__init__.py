"""The commands: rgw-check, rgw-load, rgw-relay."""
