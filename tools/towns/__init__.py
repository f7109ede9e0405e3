"""The tool for towns, by subject: engine (the calls), town (what a file holds), text, words, ask, page, command."""
