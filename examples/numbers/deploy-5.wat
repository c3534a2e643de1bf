(module (table 65537 funcref))
