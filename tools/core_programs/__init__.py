"""What tools/build, tools/ask and tools/chart share: words, build, bodies, refusals."""
