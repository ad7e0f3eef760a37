export @d @e class C { @d a: number; @d accessor b: number; @d m(@d a: number): void {} constructor(@d a: string) {} }
