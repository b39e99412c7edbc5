"""The tests. From the top of the repository: python3 -m unittest discover -s tests/FOLDER, or python3 -m unittest tests/FOLDER/FILE.py."""
