//go:build lp_lib_dir && lp_refuse

package lineprotocol

// Over a heap that refuses one request, for the tests of what comes then. No program needs it.

/*
#cgo CFLAGS: -DLP_REFUSE
extern long lp_refused, lp_requests;
*/
import "C"

// refuse counts the requests for memory from now on, and refuses the one of this number, from 0: none, if it is -1.
func refuse(number int) { C.lp_refused, C.lp_requests = C.long(number), 0 }

// requests gives how many there were.
func requests() int { return int(C.lp_requests) }
