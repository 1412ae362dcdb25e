// Serves stargz's snapshotter to containerd: main ROOT SOCKET REGISTRY
//
// Debian has it as a library alone (golang-github-containerd-stargz-snapshotter-dev). The registry
// is spoken to by plain HTTP.
package main

import (
	"context"
	"log"
	"net"
	"os"

	snapshots "github.com/containerd/containerd/api/services/snapshots/v1"
	"github.com/containerd/containerd/contrib/snapshotservice"
	"github.com/containerd/stargz-snapshotter/service"
	"github.com/containerd/stargz-snapshotter/service/resolver"
	"google.golang.org/grpc"
)

func main() {
	root, socket, registry := os.Args[1], os.Args[2], os.Args[3]
	mirror := resolver.MirrorConfig{Host: registry, Insecure: true}
	hosts := map[string]resolver.HostConfig{registry: {Mirrors: []resolver.MirrorConfig{mirror}}}
	config := &service.Config{ResolverConfig: service.ResolverConfig{Host: hosts}}
	snapshotter, err := service.NewStargzSnapshotterService(context.Background(), root, config)
	if err != nil {
		log.Fatal(err)
	}
	listener, err := net.Listen("unix", socket)
	if err != nil {
		log.Fatal(err)
	}
	server := grpc.NewServer()
	snapshots.RegisterSnapshotsServer(server, snapshotservice.FromSnapshotter(snapshotter))
	log.Fatal(server.Serve(listener))
}
