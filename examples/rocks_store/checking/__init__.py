"""What a recorded history of transactions over lists says of the store that made it."""
