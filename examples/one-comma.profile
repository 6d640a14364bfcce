clashes: two productions of rule Frac can both start with token comma
    Frac: comma digits (production 3) starts with comma
    Frac: (production 4, of no symbols) can vanish, and comma can follow Frac
