//go:build lp_lib_dir

package lineprotocol

// The library as it is built in its repository, with the heap that the archive needs of its program. CGO_LDFLAGS says where it lies:
//
//	CGO_LDFLAGS=-L$LP_LIB_DIR go build -tags lp_lib_dir

/*
#cgo CFLAGS: -I${SRCDIR}/../../include -I${SRCDIR}/../c
#cgo LDFLAGS: -llp_c
#include "empty.c"
#include "heap.c"
*/
import "C"
