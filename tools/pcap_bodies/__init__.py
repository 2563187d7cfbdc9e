"""The parts of tools/bodies, lowest first: capture, frames, packets, tcp, xdr, rpc, operations, compound, stream,
command."""
