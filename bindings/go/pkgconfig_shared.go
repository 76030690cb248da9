//go:build tscache_pkgconfig && tscache_shared

package tscache

// #cgo pkg-config: tscache-shared
import "C"
