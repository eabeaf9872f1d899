"""The language server of uxn-lsp."""
