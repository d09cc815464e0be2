char *name = "it has no end;
