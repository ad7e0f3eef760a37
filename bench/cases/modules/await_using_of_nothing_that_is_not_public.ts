await using ;
