// Operators between types, which no reading asks for.
