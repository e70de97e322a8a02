"""Real kernels in QEMU: what `try-in-vm` does, step by step."""
