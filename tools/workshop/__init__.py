"""Tools around the job program: none of this is proved. What is proved is what the programs print."""
