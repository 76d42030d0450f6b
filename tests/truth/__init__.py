"""Cases with a physical truth that is fixed beforehand: what a car took, when and on which meter."""
