"""Makes the romfs image of a layer that stands in a folder, as containerd unpacked it or overlayfs
has it above others."""
import os
import types

from strata_format.files import open_folder
from strata_layers.image_maker import image_of_folder
from strata_snapshotter.whole import Nothing


def write_folder_image(folder, out, heard):
    """Writes the image of the layer in a folder to an open file; `heard` is called for each file.
    Refused where an image doesn't hold all of the layer."""
    number = open_folder(folder)
    try:
        image_of_folder(number, out, Nothing(), os.fsencode(folder), is_upper=True,
                        progress=types.SimpleNamespace(add=heard))
    finally:
        os.close(number)
