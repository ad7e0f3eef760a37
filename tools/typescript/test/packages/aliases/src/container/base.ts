export interface Base { size: number }
