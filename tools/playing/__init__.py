"""The page that runs bq in a browser: its module, its WebAssembly and its file."""
