export namespace N {}
