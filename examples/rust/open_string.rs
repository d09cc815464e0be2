let name = "it has no end;
