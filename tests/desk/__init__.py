"""What tests/try_desk is made of: a desk that is started, what asks it, and a browser."""
