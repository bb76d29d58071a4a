"""What was recorded on a bus beside what a script plans: followers of the frames, and what they tell."""
