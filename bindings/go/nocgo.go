//go:build !cgo

package tscache

// The compiler names what is missing.
var _ = tscache_calls_C__so_set_CGO_ENABLED_to_1_and_install_a_C_compiler
