"""What the programs of this folder share: the first sentence of each module says what it has."""
