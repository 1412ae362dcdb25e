"""Mounts images: strata-mount, and mount.strata for mount(8)."""
