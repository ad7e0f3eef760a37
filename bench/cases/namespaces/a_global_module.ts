declare global {}
