"""What is read off profiles and repairs for people: the hottest functions, lines and blocks, and how much alike two
profiles are."""
