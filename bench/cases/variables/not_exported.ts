const a = true; let b = 1;
