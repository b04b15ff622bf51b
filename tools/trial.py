"""Folders of Java files for the program `test_commit_run`."""
import os
import tempfile


def path_of(folder, number):
    return os.path.join(folder, 'f', f'F{10000 + number}.java')


def make_folder(count, text):
    """A new folder with so many files of this text."""
    folder = tempfile.mkdtemp()
    os.mkdir(os.path.join(folder, 'f'))
    for number in range(count):
        with open(path_of(folder, number), 'w') as file:
            file.write(text)
    return folder
