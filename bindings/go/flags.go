//go:build !tscache_pkgconfig && !tscache_shared

package tscache

// #cgo LDFLAGS: -l:libtscache.a
import "C"
