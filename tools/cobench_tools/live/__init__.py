"""`cobtool live`: a cobench that stays open while a script is edited, and the page that follows it."""
