// Package itv verifies software supply chains by the in-toto specification 1.0, in this process.
//
//	verdict, err := itv.Verify(itv.Delivery{
//		Policy: policy, Layout: layout, Links: os.DirFS("links"), Sums: sums,
//		PublicKeys: true, At: time.Now(),
//	})
//
// Each function runs a command of the program itv, over documents in memory. That a delivery is
// refused is a value, a [Verdict]; that a command does not run is an error, a [StopError] with the
// sentence of the program.
//
// Functions may be called from several goroutines at once. Nothing is kept between two calls.
//
// The package needs cgo, and the library of itv where pkg-config finds it: libitv.a, which becomes
// part of the program, or libitv.so where the package is built with the tag itv_shared.
package itv
