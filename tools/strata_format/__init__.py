"""What the programs for mounts and for layers share: images of romfs, read and written, with their
attribute trailers; the text of FUSE's messages; and what any program needs of the system."""
