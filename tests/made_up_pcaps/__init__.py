"""What tests/capture_bodies makes its captures of: pcap files, RPC records, and a sample of each operation."""
