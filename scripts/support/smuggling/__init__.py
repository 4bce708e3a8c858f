"""Messages that HTTP/1.1 servers may read differently, and what real servers read of them."""
