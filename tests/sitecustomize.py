"""What a Python with this folder on its PYTHONPATH does first."""
import without

without.hide()
