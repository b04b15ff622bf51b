package shop;

public class Main {
  public static void main(String[] args) {
    Cart cart = new Cart();
    try {
      for (int n = 1; n < 9; n++) {
        cart.add(cart.gift());
        System.out.println("total " + cart.total());
      }
    } catch (Cart.Full e) {
      System.out.println("full");
    } finally {
      System.out.println("done");
    }
  }
}
