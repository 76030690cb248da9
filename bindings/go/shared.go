//go:build !tscache_pkgconfig && tscache_shared

package tscache

// #cgo LDFLAGS: -ltscache
import "C"
