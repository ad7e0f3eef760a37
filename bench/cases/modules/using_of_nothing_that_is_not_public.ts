using ;
