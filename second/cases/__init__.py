"""Case files for the proved programs, and the answers that they must get."""
