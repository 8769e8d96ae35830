"""What `tools/job` is made of: floats, records, text, orders, output, plan, drawing."""


class Wrong(Exception):
    """An input that can't be used; the message names the file and the line."""
