"""What documents 01 and 02 say, what each call answers and what each program prints."""
