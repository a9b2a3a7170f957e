"""A writer of H.264 streams for bench: code words, parameter sets, macroblocks, pictures, and streams that are legal by construction."""
