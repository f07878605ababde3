"""A live look at the replies of a session, or at the numbers of a keeper."""
