"""Charts of traces: a trace's text is read (`reading`), what happened in it is worked out (`model`), put into short words
(`wording`), and written as one page (`page`)."""
