"""cxldesk: every question about a machine, from one command."""
