"""What the program is made of, by the packages of Debian that have it."""
from __future__ import annotations

import importlib.util

# Modules of Python, GStreamer for them, and its elements.
MODULES = {"python3-gi": "gi", "python3-numpy": "numpy"}
BINDINGS = "gir1.2-gstreamer-1.0"
ELEMENTS = {
    "gstreamer1.0-plugins-base": ["appsrc", "appsink", "audioconvert", "audioresample"],
    "gstreamer1.0-plugins-good": [
        "udpsrc", "multiudpsink", "rtpbin", "wavparse", "mulawenc", "mulawdec", "alawenc", "alawdec", "rtppcmupay", "rtppcmapay",
        "rtppcmudepay", "rtppcmadepay",
    ],
}


def lacking() -> list[str]:
    """The packages that it lacks. Of those that can't be looked for yet, all."""
    missing = [package for package, module in MODULES.items() if importlib.util.find_spec(module) is None]
    if "python3-gi" in missing:
        return [*missing, BINDINGS, *ELEMENTS]
    import gi

    try:
        gi.require_version("Gst", "1.0")
    except ValueError:
        return [*missing, BINDINGS, *ELEMENTS]
    from gi.repository import Gst

    Gst.init(None)
    # Each is made once: the first of its kind takes long.
    return missing + [package for package, names in ELEMENTS.items() if None in [Gst.ElementFactory.make(name) for name in names]]
