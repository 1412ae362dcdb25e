"""A proxy snapshotter of containerd: strata-snapshotter. It alone needs grpcio and protobuf."""
