// Lp_gateway takes lines of InfluxDB line protocol from clients, and has each line in a server or on the disk before it says so. It reads each line by the
// Go module over the proved library. docs/GATEWAY.md says how to run it, and MODEL.md what it promises.
package main

import (
	"context"
	"errors"
	"flag"
	"fmt"
	"io"
	"os"
	"os/signal"
	"syscall"
)

const usage = `usage: lp_gateway serve [--NAME VALUE]..
       lp_gateway send [--NAME VALUE].. FILE..
       lp_gateway send [--NAME VALUE].. --spool FOLDER
       lp_gateway --version

serve takes lines over HTTP, HTTPS, Unix sockets and TCP, and sends them to
servers. send posts the lines of files, or the batches of a folder. Add --help
after serve or send for their options.
`

// Version is the version of the program, which the build sets.
var version = "unknown"

func main() { os.Exit(run(os.Args[1:], os.Stdout, os.Stderr)) }

// run runs a command, and returns the status of the program.
func run(words []string, out, said io.Writer) int {
	if len(words) == 0 {
		fmt.Fprint(said, usage)
		return 2
	}
	switch words[0] {
	case "serve":
		return serve(words[1:], said)
	case "send":
		return send(words[1:], said)
	case "--version":
		fmt.Fprintf(out, "lp_gateway %s\n", version)
		return 0
	case "--help", "-h", "help":
		fmt.Fprint(out, usage)
		return 0
	}
	fmt.Fprintf(said, "lp_gateway: %q is not a command\n%s", words[0], usage)
	return 2
}

// serve runs the gateway until a signal ends it. A second signal ends it at once.
func serve(words []string, said io.Writer) int {
	o, err := readOptions(words, said)
	if errors.Is(err, flag.ErrHelp) {
		return 0
	}
	ctx, stop := signal.NotifyContext(context.Background(), syscall.SIGTERM, syscall.SIGINT)
	go func() { <-ctx.Done(); stop() }()
	again := make(chan os.Signal, 1)
	signal.Notify(again, syscall.SIGHUP)
	var g *gateway
	if err == nil {
		g, err = newGateway(o, said)
	}
	if err == nil {
		err = g.run(ctx, again)
	}
	if err != nil {
		(&logger{to: said}).printf("%v", err)
		return 2
	}
	return 0
}
