export interface Other<T> { value: T }
