package shop;

public class Cart {
  public static class Full extends Exception { }

  private Item[] items = new Item[4];
  private int size;

  class Gift implements Item {
    public int price() { return size; }
  }

  public Item gift() { return new Gift(); }

  public void add(Item item) throws Full {
    if (size == items.length) {
      throw new Full();
    }
    items[size++] = item;
  }

  public int total() {
    int sum = 0;
    for (int i = 0; i < size; i++) {
      sum += items[i].price();
    }
    return sum;
  }
}
