interface I {} interface J {}
