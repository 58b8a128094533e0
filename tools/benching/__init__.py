"""What `bench_program` measures."""
