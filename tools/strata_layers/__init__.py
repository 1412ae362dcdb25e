"""Makes images of the layers of container images: strata-layers with its verbs, and the store of
layers."""
